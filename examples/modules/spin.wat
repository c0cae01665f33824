;; A loop without an end takes all fuel that there is; a branch to it takes one unit of its own.
;; line: types 1 funcs 1 tables 0 memories 0 globals 0 exports 1 start - elems 0 datas 0 size 39
;; call: spin 1000 = spent left 0
;; call: spin 0 = spent left 0
(module
  (func (export "spin")
    loop
      br 0
    end))
