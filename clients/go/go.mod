module hechdoram

go 1.18
