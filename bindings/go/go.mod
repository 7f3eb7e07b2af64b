module h3qpack

go 1.19
