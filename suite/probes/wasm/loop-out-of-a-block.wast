;; loop-out-of-a-block: a branch out of a loop and the block round it
(module $env
  (memory 4)
  (data (i32.const 0) "\00\00\00\00")
  (global $taken (mut i32) (i32.const 0))
  (global $written (mut i32) (i32.const 0))
  (func (export "getchar") (result i32)
    (if (i32.ge_u (global.get $taken) (i32.load (i32.const 0))) (then (return (i32.const 0))))
    (global.set $taken (i32.add (global.get $taken) (i32.const 1)))
    (i32.load8_u offset=3 (global.get $taken)))
  (func (export "putchar") (param $byte i32)
    (i32.store8 offset=65536 (global.get $written) (local.get $byte))
    (global.set $written (i32.add (global.get $written) (i32.const 1))))
  (func (export "written") (result i32) (global.get $written))
  (func (export "byte") (param $at i32) (result i32) (i32.load8_u offset=65536 (local.get $at))))
(register "env" $env)
(module
(import "env" "putchar" (func $putchar (param i32)))
(func (export "main")
  (block
    (loop
      (call $putchar (i32.const 65))
      (br 1)))
  (call $putchar (i32.const 66))))
(assert_return (invoke "main"))
(assert_return (invoke $env "written") (i32.const 2))
(assert_return (invoke $env "byte" (i32.const 0)) (i32.const 65))
(assert_return (invoke $env "byte" (i32.const 1)) (i32.const 66))
