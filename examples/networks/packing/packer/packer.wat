;; A gateway from classical CAN to CAN FD: of each two frames of 8 bytes that it receives at terminal SLOW it makes one of
;; 16 bytes with a faster data phase, identifier 0x400, at terminal FAST. A classical frame from FAST goes to SLOW as it is.
(module
  (memory (export "memory") 1)

  ;; The operation for FAST: code 0x11, 33 bytes in all, identifier 0x400, base format, BRS, no ESI, 16 bytes of data.
  (data (i32.const 0) "\11\00\00\00" "\21\00\00\00" "\00\04\00\00" "\00" "\01" "\00" "\10\00")

  (global $packed (mut i32) (i32.const 0)) ;; how many bytes of data it has, from 17 on
  (global $length (mut i32) (i32.const 0)) ;; of the operations for SLOW; they stand from 16384 on

  ;; Numbers and bytes are exchanged from 1024 on: 64 bytes, and the bytes of operations behind them at 1088.
  (func (export "bench_area") (param $size i32) (result i32) (i32.const 1024))

  ;; ---- the life of the unit: nothing is to be done

  (func (export "fmi3InstantiateCoSimulation") (result i32) (i32.const 0))
  (func (export "fmi3EnterInitializationMode") (result i32) (i32.const 0))
  (func (export "fmi3ExitInitializationMode") (result i32) (i32.const 0))
  (func (export "fmi3EnterEventMode") (result i32) (i32.const 0))
  (func (export "fmi3EnterStepMode") (result i32) (i32.const 0))
  (func (export "fmi3DoStep") (param $moment i64) (param $size i64) (result i32) (i32.const 0))
  (func (export "fmi3Terminate") (result i32) (i32.const 0))
  (func (export "fmi3FreeInstance"))

  ;; ---- what comes in: bytes for terminal SLOW as binary 1, and for terminal FAST as binary 5

  (func (export "fmi3SetClock") (param $reference i32) (param $value i32) (result i32) (i32.const 0))

  ;; Looks at one operation after the other: a code and a length of four bytes each, and what the code asks for.
  (func (export "fmi3SetBinary") (param $reference i32) (param $length i32) (result i32)
    (local $at i32) (local $end i32)
    (local.set $at (i32.const 1088))
    (local.set $end (i32.add (i32.const 1088) (local.get $length)))
    (block $done
      (loop $next
        (br_if $done (i32.ge_u (local.get $at) (local.get $end)))
        (call $take (local.get $reference) (local.get $at))
        (local.set $at (i32.add (local.get $at) (i32.load offset=4 (local.get $at))))
        (br $next)))
    (i32.const 0))

  ;; A classical frame: code 0x10, and its data from byte 16 of the operation on. From SLOW it needs 8 bytes: 24 in all.
  (func $take (param $reference i32) (param $at i32)
    (if (i32.eq (i32.load (local.get $at)) (i32.const 0x10))
      (then
        (if (i32.eq (local.get $reference) (i32.const 1))
          (then
            (if (i32.eq (i32.load offset=4 (local.get $at)) (i32.const 24))
              (then (call $pack (local.get $at)))))
          (else
            (call $copy (i32.add (i32.const 16384) (global.get $length)) (local.get $at)
                        (i32.load offset=4 (local.get $at)))
            (global.set $length (i32.add (global.get $length) (i32.load offset=4 (local.get $at)))))))))

  (func $pack (param $at i32)
    (i64.store offset=17 (i32.and (global.get $packed) (i32.const 8)) (i64.load offset=16 (local.get $at)))
    (global.set $packed (i32.add (global.get $packed) (i32.const 8))))

  ;; ---- what goes out: clock 2 and binary 3 for SLOW, clock 6 and binary 7 for FAST

  (func (export "fmi3GetClock") (param $reference i32) (result i32)
    (i32.store (i32.const 1024)
      (if (result i32) (i32.eq (local.get $reference) (i32.const 2))
        (then (i32.ne (global.get $length) (i32.const 0)))
        (else (i32.ge_u (global.get $packed) (i32.const 16)))))
    (i32.const 0))

  (func (export "fmi3GetBinary") (param $reference i32) (result i32)
    (if (i32.eq (local.get $reference) (i32.const 3))
      (then
        (i32.store (i32.const 1024) (global.get $length))
        (call $copy (i32.const 1088) (i32.const 16384) (global.get $length))
        (global.set $length (i32.const 0)))
      (else
        (i32.store (i32.const 1024) (i32.const 33))
        (call $copy (i32.const 1088) (i32.const 0) (i32.const 33))
        (global.set $packed (i32.const 0))))
    (i32.const 0))

  ;; Neither another update nor the end.
  (func (export "fmi3UpdateDiscreteStates") (result i32)
    (i64.store (i32.const 1024) (i64.const 0))
    (i32.const 0))

  ;; There is no countdown clock, so this is never asked.
  (func (export "fmi3GetIntervalFraction") (param $reference i32) (result i32) (i32.const 0))

  (func $copy (param $to i32) (param $from i32) (param $length i32)
    (block $done
      (loop $next
        (br_if $done (i32.eqz (local.get $length)))
        (i32.store8 (local.get $to) (i32.load8_u (local.get $from)))
        (local.set $to (i32.add (local.get $to) (i32.const 1)))
        (local.set $from (i32.add (local.get $from) (i32.const 1)))
        (local.set $length (i32.sub (local.get $length) (i32.const 1)))
        (br $next)))))
