;; Takes whatever comes, and sends nothing. It acknowledges frames, as every node does that is awake.
(module
  (memory (export "memory") 1)

  ;; Numbers and bytes are exchanged from 1024 on: 64 bytes, and the bytes of operations behind them at 1088.
  (func (export "bench_area") (param $size i32) (result i32) (i32.const 1024))

  ;; ---- the life of the unit: nothing is to be done

  (func (export "fmi3InstantiateCoSimulation") (result i32) (i32.const 0))
  (func (export "fmi3EnterInitializationMode") (result i32) (i32.const 0))
  (func (export "fmi3ExitInitializationMode") (result i32) (i32.const 0))
  (func (export "fmi3EnterEventMode") (result i32) (i32.const 0))
  (func (export "fmi3EnterStepMode") (result i32) (i32.const 0))
  (func (export "fmi3DoStep") (param $moment i64) (param $size i64) (result i32) (i32.const 0))
  (func (export "fmi3Terminate") (result i32) (i32.const 0))
  (func (export "fmi3FreeInstance"))

  ;; ---- what comes in isn't looked at

  (func (export "fmi3SetClock") (param $reference i32) (param $value i32) (result i32) (i32.const 0))
  (func (export "fmi3SetBinary") (param $reference i32) (param $length i32) (result i32) (i32.const 0))

  ;; ---- what goes out: nothing

  (func (export "fmi3GetClock") (param $reference i32) (result i32)
    (i32.store (i32.const 1024) (i32.const 0))
    (i32.const 0))
  (func (export "fmi3GetBinary") (param $reference i32) (result i32)
    (i32.store (i32.const 1024) (i32.const 0))
    (i32.const 0))

  ;; Neither another update nor the end.
  (func (export "fmi3UpdateDiscreteStates") (result i32)
    (i64.store (i32.const 1024) (i64.const 0))
    (i32.const 0))

  ;; There is no countdown clock, so this is never asked.
  (func (export "fmi3GetIntervalFraction") (param $reference i32) (result i32) (i32.const 0)))
