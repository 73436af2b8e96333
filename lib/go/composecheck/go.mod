module composecheck

go 1.19
