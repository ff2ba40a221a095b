module treedb

go 1.19
