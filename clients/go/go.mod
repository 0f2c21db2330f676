module toxi.invalid/toxi

go 1.19
