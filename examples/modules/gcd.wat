;; The greatest common divisor, by a loop that branches back while there is a remainder.
;; line: types 1 funcs 1 tables 0 memories 0 globals 0 exports 1 start - elems 0 datas 0 size 68
;; call: gcd 1000 48 36 = value 12 left 970
(module
  (func (export "gcd") (param $a i64) (param $b i64) (result i64)
    (local $rest i64)
    block $done
      loop $next
        local.get $b
        i64.eqz
        br_if $done
        local.get $a
        local.get $b
        i64.rem_u
        local.set $rest
        local.get $b
        local.set $a
        local.get $rest
        local.set $b
        br $next
      end
    end
    local.get $a))
