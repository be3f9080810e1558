TYPE Book = book[title[string],author[string]+,price[string]?];
TYPE Disc = cd[title[string],price[string]?];
INPUT lib[(Book|Disc)*]
DO DELETE lib/book/price
