"""Answers written out by hand from the rules, with a comma for each line feed."""

BY_HAND = {
    "islice 0,1,0 ; 1": "refused 5",
    "islice 0,2,3 ; 0 1 2 3": "item 0, end, end, end, left 2",
    "islice 2,_ ; -": "end, end, end, left 0",
    "islice - ; 1": "refused 5",
    "compress nonzero ; 7 8 ; -": "end, end, end, left 1 0",
    "accumulate sum - ; 18446744073709551615 1":
        "item 18446744073709551615, fault 4 1 0, end, end, end, left 0",
    "zip_longest 8 9 ; 1 ; -": "item 1 9, end, end, end, left 0 0",
    "range 0 0": "end, end, end",
    "range 5 3": "end, end, end",
    "range 7 9": "item 7, item 8, end, end, end",
    "range 4294967294 4294967295": "item 4294967294, end, end, end",
    "range 007 010": "item 7, item 8, item 9, end, end, end",
    "records -": "end, end, end",
    "records 080010000700020068017201": "block 7 2 360 370, end, end, end",
    "records 08": "fault 1 1 0, end, end, end",
    "records 080010": "fault 1 1 0, end, end, end",
    "records 08001000": "fault 1 2 0, end, end, end",
    "records 0800100007000200680172": "fault 1 2 0, end, end, end",
    "records 00001000": "fault 1 4 0, end, end, end",
    "records 00001100080010000700020068017201": "fault 1 3 0, block 7 2 360 370, end, end, end",
    "records 080010000700020068017201080010": "block 7 2 360 370, fault 1 1 12, end, end, end",
    "records 080010000700020068016801": "fault 1 5 0, end, end, end",
    "takewhile below:3 ; 1 2 5 1 7": "item 1, item 2, end, end, end, left 2",
    "takewhile below:0 ; -": "end, end, end, left 0",
    "takewhile below:3:1 ; 1 2 5 1 7": "fault 2 1 0, item 2, end, end, end, left 2",
    "takewhile below:3 ; 1 !1:2:3 5 2": "item 1, fault 1 2 3, end, end, end, left 1",
    "dropwhile below:3 ; 1 2 5 1 7": "item 5, item 1, item 7, end, end, end, left 0",
    "dropwhile below:3:2 ; 1 2 5 1 7": "fault 2 1 0, item 5, item 1, item 7, end, end, end, left 0",
    "dropwhile below:3:7 ; 1 2 5 1 7": "item 5, item 1, item 7, end, end, end, left 0",
    "dropwhile below:3 ; 1 !1:2:3 5 2": "fault 1 2 3, item 5, item 2, end, end, end, left 0",
    "chain ; 1 2 ; 7 8": "item 1, item 2, item 7, item 8, end, end, end, left 0 0",
    "chain ; 1 !1:2:3 2 ; 7 8": "item 1, fault 1 2 3, end, end, end, left 1 2",
    "chain ; 1 2 ; !1:2:3 7 8": "item 1, item 2, fault 1 2 3, end, end, end, left 0 2",
    "islice 0,5,3 ; 0 1 2 3 4 5 6 7 8 9": "item 0, item 3, end, end, end, left 5",
    "islice 3,1 ; 0 1 2 3 4 5 6 7 8 9": "end, end, end, left 7",
    "islice _ ; 0 1 2 3": "item 0, item 1, item 2, item 3, end, end, end, left 0",
    "islice 0 ; 0 1 2 3": "end, end, end, left 4",
    "islice - ; 0 1 2": "refused 5",
    "islice 1,2,0 ; 0 1 2": "refused 5",
    "islice 1,2,3,4 ; 0 1 2": "refused 5",
    "islice 9223372036854775807 ; 0 1 2": "item 0, item 1, item 2, end, end, end, left 0",
    "islice 9223372036854775808 ; 0 1 2": "refused 5",
    "islice 0,_,9223372036854775807 ; 0 1 2 3 4": "item 0, end, end, end, left 0",
    "islice 1,_,9223372036854775807 ; 0 1 2 3 4": "item 1, end, end, end, left 0",
    "islice 2 ; 5 !1:2:3 6 7": "item 5, fault 1 2 3, item 6, end, end, end, left 1",
    "islice 2 ; 5 6 !1:2:3 7": "item 5, item 6, end, end, end, left 2",
    "islice 2,1 ; 5 !1:2:3 6 7": "fault 1 2 3, end, end, end, left 1",
    "compress nonzero ; 7 8 9 ; 1 0": "item 7, end, end, end, left 0 0",
    "compress nonzero ; 7 8 9 ; 1": "item 7, end, end, end, left 1 0",
    "compress nonzero ; - ; 1 0": "end, end, end, left 0 2",
    "compress nonzero ; 7 !1:2:3 8 ; 1 1": "item 7, fault 1 2 3, item 8, end, end, end, left 0 0",
    "compress nonzero ; 7 8 9 6 ; 1 !1:2:3 0 1":
        "item 7, fault 1 2 3, item 6, end, end, end, left 0 0",
    "compress nonzero:2 ; 6 7 8 9 ; 1 0 2 1":
        "item 6, fault 2 1 0, item 9, end, end, end, left 0 0",
    "accumulate sum - ; 3 1 4 1 5 9 2 6":
        "item 3, item 4, item 8, item 9, item 14, item 23, item 25, item 31, end, end, end, left 0",
    "accumulate max 5 ; 4": "item 5, item 5, end, end, end, left 0",
    "accumulate sum 5 ; -": "item 5, end, end, end, left 0",
    "accumulate sum - ; 18446744073709551615 1 0 2 0":
        "item 18446744073709551615, fault 4 1 0, item 18446744073709551615, fault 4 1 0, "
        "item 18446744073709551615, end, end, end, left 0",
    "accumulate sum - ; !1:2:3 3 7": "fault 1 2 3, item 3, item 10, end, end, end, left 0",
    "pairwise ; 1": "end, end, end, left 0",
    "pairwise ; 1 2 3": "item 1 2, item 2 3, end, end, end, left 0",
    "pairwise ; 1 !1:0:0 2 3": "fault 1 0 0, item 2 3, end, end, end, left 0",
    "pairwise ; 1 2 !1:0:0 3": "item 1 2, fault 1 0 0, item 2 3, end, end, end, left 0",
    "zip_longest 8 9 ; 1 2 ; 5": "item 1 5, item 2 9, end, end, end, left 0 0",
    "zip_longest 8 9 ; - ; 5 6": "item 8 5, item 8 6, end, end, end, left 0 0",
    "zip_longest 8 9 ; 1 !1:0:0 2 ; 5 6":
        "item 1 5, fault 1 0 0, item 2 6, end, end, end, left 0 0",
    "zip_longest 8 9 ; 1 2 ; 5 !1:0:0 6":
        "item 1 5, fault 1 0 0, item 8 6, end, end, end, left 0 0",
    "product 1 2,2 ; n n n n n n n":
        "row places 0 0 7777 7777 elements 1000 1002 7777 7777, "
        "row places 0 1 7777 7777 elements 1000 1003 7777 7777, "
        "row places 1 0 7777 7777 elements 1001 1002 7777 7777, "
        "row places 1 1 7777 7777 elements 1001 1003 7777 7777, "
        "end places 7777 7777 7777 7777 elements 7777 7777 7777 7777, "
        "end places 7777 7777 7777 7777 elements 7777 7777 7777 7777, "
        "end places 7777 7777 7777 7777 elements 7777 7777 7777 7777",
    "product 1 - ; n n n n":
        "row places 7777 7777 elements 7777 7777, end places 7777 7777 elements 7777 7777, "
        "end places 7777 7777 elements 7777 7777, end places 7777 7777 elements 7777 7777",
    "product 1 3,0 ; n n n":
        "end places 7777 7777 7777 7777 elements 7777 7777 7777 7777, "
        "end places 7777 7777 7777 7777 elements 7777 7777 7777 7777, "
        "end places 7777 7777 7777 7777 elements 7777 7777 7777 7777",
    "product 2 1,2 ; n:3:4:4 n:3:4:4 n:3:4:4 n:3:4:4 n:3:4:4":
        "row places 0 0 0 0 elements 1000 1001 1000 1001, "
        "row places 0 0 0 1 elements 1000 1001 1000 1002, "
        "row places 0 1 0 0 elements 1000 1002 1000 1001, "
        "row places 0 1 0 1 elements 1000 1002 1000 1002, "
        "end places 7777 7777 7777 7777 elements 7777 7777 7777 7777",
    "product 1 1,0,1 ; n n:2:2:3 n:2:3:3":
        "end places 7777 7777 7777 7777 7777 elements 7777 7777 7777 7777 7777, "
        "refused 4 places 7777 7777 elements 7777 7777 7777, "
        "end places 7777 7777 7777 elements 7777 7777 7777",
    "product 0 256,256 ; n:511:0:0 n:512:0:0 n:512:0:0 n:513:0:0":
        "refused 3 places elements, row places elements, end places elements, "
        "refused 3 places elements",
    "product 65 0 ; n:0:0:0 n n:1:2:3": "refused 2",
    "product 65 257 ; n n:257:65:65": "refused 1",
    "product 4294967295 - ; n n n":
        "row places 7777 7777 elements 7777 7777, end places 7777 7777 elements 7777 7777, "
        "end places 7777 7777 elements 7777 7777",
    "product 4294967295 1,1 ; n": "refused 2",
    "combinations 3 2 ; n n n n n n":
        "row places 0 1 7777 7777 elements 1000 1001 7777 7777, "
        "row places 0 2 7777 7777 elements 1000 1002 7777 7777, "
        "row places 1 2 7777 7777 elements 1001 1002 7777 7777, "
        "end places 7777 7777 7777 7777 elements 7777 7777 7777 7777, "
        "end places 7777 7777 7777 7777 elements 7777 7777 7777 7777, "
        "end places 7777 7777 7777 7777 elements 7777 7777 7777 7777",
    "combinations 2 3 ; n n n":
        "end places 7777 7777 7777 7777 7777 elements 7777 7777 7777 7777 7777, "
        "end places 7777 7777 7777 7777 7777 elements 7777 7777 7777 7777 7777, "
        "end places 7777 7777 7777 7777 7777 elements 7777 7777 7777 7777 7777",
    "combinations 4 2 ; n:4:1:2 n:4:2:1 n:4:1:1 n:4:2:2 n:4:2:1 n:4:1:2 n:4:0:0 n:4:2:2 n:4:1:1 n":
        "refused 4 places 7777 elements 7777 7777, refused 4 places 7777 7777 elements 7777, "
        "refused 4 places 7777 elements 7777, row places 0 1 elements 1000 1001, "
        "refused 4 places 7777 7777 elements 7777, refused 4 places 7777 elements 7777 7777, "
        "refused 4 places elements, row places 0 2 elements 1000 1002, "
        "refused 4 places 7777 elements 7777, "
        "row places 0 3 7777 7777 elements 1000 1003 7777 7777",
    "combinations 4 2 ; n:5:1:2 n:5:2:1 n:5:0:0 n:4:2:2":
        "refused 3 places 7777 elements 7777 7777, refused 3 places 7777 7777 elements 7777, "
        "refused 3 places elements, row places 0 1 elements 1000 1001",
    "combinations 3 2 ; n n:3:2:1 n n:3:2:2 n":
        "row places 0 1 7777 7777 elements 1000 1001 7777 7777, "
        "refused 4 places 7777 7777 elements 7777, "
        "row places 0 2 7777 7777 elements 1000 1002 7777 7777, "
        "row places 1 2 elements 1001 1002, "
        "end places 7777 7777 7777 7777 elements 7777 7777 7777 7777",
    "combinations 3 65 ; n:0:0:0 n n:1:2:3": "refused 2",
    "combinations 257 65 ; n:0:0:0 n n:1:2:3": "refused 1",
    "combinations 1099511627776 2 ; n": "refused 1",
    "combinations 2 1099511627776 ; n": "refused 2",
    "replacement 2 2 ; n n n n n n":
        "row places 0 0 7777 7777 elements 1000 1000 7777 7777, "
        "row places 0 1 7777 7777 elements 1000 1001 7777 7777, "
        "row places 1 1 7777 7777 elements 1001 1001 7777 7777, "
        "end places 7777 7777 7777 7777 elements 7777 7777 7777 7777, "
        "end places 7777 7777 7777 7777 elements 7777 7777 7777 7777, "
        "end places 7777 7777 7777 7777 elements 7777 7777 7777 7777",
    "replacement 0 1 ; n n n":
        "end places 7777 7777 7777 elements 7777 7777 7777, "
        "end places 7777 7777 7777 elements 7777 7777 7777, "
        "end places 7777 7777 7777 elements 7777 7777 7777",
    "permutations 3 2 ; n n n n n n n n n":
        "row places 0 1 7777 7777 elements 1000 1001 7777 7777, "
        "row places 0 2 7777 7777 elements 1000 1002 7777 7777, "
        "row places 1 0 7777 7777 elements 1001 1000 7777 7777, "
        "row places 1 2 7777 7777 elements 1001 1002 7777 7777, "
        "row places 2 0 7777 7777 elements 1002 1000 7777 7777, "
        "row places 2 1 7777 7777 elements 1002 1001 7777 7777, "
        "end places 7777 7777 7777 7777 elements 7777 7777 7777 7777, "
        "end places 7777 7777 7777 7777 elements 7777 7777 7777 7777, "
        "end places 7777 7777 7777 7777 elements 7777 7777 7777 7777",
    "permutations 0 0 ; n n n n":
        "row places 7777 7777 elements 7777 7777, end places 7777 7777 elements 7777 7777, "
        "end places 7777 7777 elements 7777 7777, end places 7777 7777 elements 7777 7777",
    "permutations 65 - ; n n:1:2:3": "refused 2",
    "tee - 2 ; 1 2 3 ; s0 s0 s0 s1": "item 1, item 2, refused 6, item 1, left 1, store 1 2",
    "tee 2 0 ; - ; s0 s1": "refused 6, refused 6, left 0, store",
    "tee 2 1 ; - ; s0 s1 c0 s2": "end, end, branch 2, end, left 0, store 7777",
    "tee 2 1 ; 7 ; s0 s0 s1 s1": "item 7, refused 6, item 7, refused 6, left 0, store 7",
    "tee 2 2 ; 7 ; s0 s0 s1 s1": "item 7, end, item 7, end, left 0, store 7 7777",
    "tee 1 1 ; 7 8 ; s0 s1:2 s1 s0:2 s0 s1:1 s0:0":
        "item 7, refused 9, refused 8, refused 9, refused 6, refused 8, refused 9, left 1, store 7",
    "tee 2 2 ; 7 8 9 ; s0 s1:2 s1:02 s0 s1 s0:2 s1":
        "item 7, item 7777, item 8, item 7777, refused 6, refused 6, refused 6, left 1, "
        "store 7 7777",
    "tee 1 5 ; 7 8 9 ; s0 s0 c0 s1 s0 c1 s2 c9 s3":
        "item 7, item 8, branch 1, item 9, item 9, branch 2, end, refused 8, refused 8, left 0, "
        "store 7 8 9 7777 7777",
    "tee 16 2 ; 7 8 ; s0 s15 c15 s16 s14 c0":
        "item 7, item 7, refused 8, refused 8, item 7, refused 8, left 1, store 7 7777",
    "tee 17 2 ; 7 8 ; s0 s15 c15 s16 s14 c0": "refused 8",
    "tee 17 1099511627776 ; 7 ; s0 s0:1099511627776 s0:18446744073709551615": "refused 8",
    "tee 2 2 ; !1:2:3 7 8 ; s0 s1 s1 s0 s0 s1 s0 s1":
        "fault 1 2 3, item 7, item 8, item 7, item 8, refused 6, refused 6, refused 6, left 0, "
        "store 7 8",
    "groupby self ; 5 5 6 5 ; g i1 i1 i1 g i2 i2 g i3 i3 g":
        "group 5 1, item 5, item 5, end, group 6 2, item 6, end, group 5 3, item 5, end, end, "
        "left 0",
    "groupby self ; 5 5 6 5 ; g g g g g": "group 5 1, group 6 2, group 5 3, end, end, left 0",
    "groupby self ; 5 ; g i1 i1 i1 g i1 g": "group 5 1, item 5, end, end, end, end, end, left 0",
    "groupby self ; 5 5 !1:2:3 5 6 ; g i1 g i1 g i1 i2":
        "group 5 1, item 5, fault 1 2 3, end, group 6 2, end, item 6, left 0",
    "groupby self ; 5 !1:2:3 5 6 ; g i1 i1 i1 i1 i1 g i2":
        "group 5 1, item 5, fault 1 2 3, item 5, end, end, group 6 2, item 6, left 0",
    "groupby mod:9:7 ; 5 7 5 6 ; g i1 i1 i1 i1 i1 g i2":
        "group 5 1, item 5, fault 3 1 0, item 5, end, end, group 6 2, item 6, left 0",
    "groupby mod:0 ; 1 ; g": "bad scenario",
    "listing combinations 3 2 ; -": "listed 16, | 0 1, | 0 2, | 1 2, | end, rest kept",
    "listing combinations 3 2 ; 805": "listed 16, | 0 1, | 0 2, | 1 2, | end, rest kept",
    "listing combinations 3 2 ; 804": "refused 4, rest kept",
    "listing combinations 3 0 ; -": "listed 5, | , | end, rest kept",
    "listing combinations 2 3 ; -": "listed 4, | end, rest kept",
    "listing product 2 2 ; -": "listed 20, | 0 0, | 0 1, | 1 0, | 1 1, | end, rest kept",
    "listing product 1 257 ; 32768": "refused 1",
    "listing permutations 65 - ; 0": "refused 2",
    "listing combinations 3 2 ; 32769": "bad scenario",
    "combinations 3 2 ; n:1:2": "bad scenario",
    "combinations 3 2 ; ": "bad scenario",
    "product 4294967296 2 ; n": "bad scenario",
    "combinations 3 65 ; n:1:2": "bad scenario",
    "chain ;  ; 1": "bad scenario",
    "range 0 +1": "bad scenario",
    "range 0 1\r": "bad scenario",
    "pairwise ; !256:0:0": "bad scenario",
}
