module counts

go 1.19

require hourstable v1.0.0

replace hourstable => ../../../go
