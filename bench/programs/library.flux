INPUT lib[book[title[string],author[string]+,price[string]?]*] DO SKIP
