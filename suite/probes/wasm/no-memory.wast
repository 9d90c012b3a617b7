;; no-memory: a load without a memory
(assert_invalid (module
(import "env" "putchar" (func $putchar (param i32)))
(func (export "main") (call $putchar (i32.const 65)) (drop (i32.load (i32.const 0))))) "unknown memory")
