module hourstable

go 1.19
