module keynoted

go 1.19
