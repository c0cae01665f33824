;; The days of a month, by a table of branches, with 0 for what is no month.
;; line: types 1 funcs 1 tables 0 memories 0 globals 0 exports 1 start - elems 0 datas 0 size 84
(module
  (func (export "days") (param $month i32) (param $leap i32) (result i32)
    block $none
      block $long
        block $short
          block $february
            local.get $month
            br_table $none $long $february $long $short $long $short $long $long $short $long $short $long $none
          end
          i32.const 28
          local.get $leap
          i32.const 0
          i32.ne
          i32.add
          return
        end
        i32.const 30
        return
      end
      i32.const 31
      return
    end
    i32.const 0))
