;; data-outside: a segment that ends past the memory
(assert_trap (module
(import "env" "putchar" (func $putchar (param i32)))
(memory 1)
(data (i32.const 65535) "ab")
(func (export "main") (call $putchar (i32.const 65)) )) "out of bounds memory access")
