;; A load at its argument: the last four bytes of a page are there, and no byte behind them.
;; line: types 1 funcs 1 tables 0 memories 1 globals 0 exports 1 start - elems 0 datas 0 size 43
;; call: f 100 65532 = value 0 left 98
;; call: f 100 65533 = trap Memory left 98
;; call: f 100 4294967295 = trap Memory left 98
;; call: f 2 65532 = value 0 left 0
;; call: f 1 65532 = spent left 0
;; call: f 100 4294967296 = refused main Args 0 0
;; call: f 100 = refused main Args 0 0
;; call: g 100 0 = refused main Export 0 0
(module
  (memory 1)
  (func (export "f") (param i32) (result i32)
    local.get 0
    i32.load))
