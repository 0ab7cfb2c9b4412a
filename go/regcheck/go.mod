module example.org/regcheck

go 1.18
