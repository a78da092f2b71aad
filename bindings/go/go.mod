module mvtgate

go 1.19
