;; Nothing: the eight bytes of the header.
;; line: types 0 funcs 0 tables 0 memories 0 globals 0 exports 0 start - elems 0 datas 0 size 8
(module)
