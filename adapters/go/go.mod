module lincheck

go 1.18
