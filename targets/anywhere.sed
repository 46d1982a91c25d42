# The proved module's text without what is x86-64's alone: its triple, layout and processor, and how wide an address is.
/^target triple /d
/^target datalayout /d
s/ "target-cpu"="x86-64"//
# An address as a number of 64 bits: `ptrtoaddr` makes one of the machine's own width, which may be 32, `ptrtoint` of any.
s/ = ptrtoaddr ptr / = ptrtoint ptr /
# A byte and a pointer: in memory the pointer stands at byte 8, where a machine of 32 bits would look at byte 4.
s/\(extractvalue { i8, \)\(ptr } %[^,]*, \)1$/\1[7 x i8], \22/
s/{ i8, ptr }/{ i8, [7 x i8], ptr }/g
