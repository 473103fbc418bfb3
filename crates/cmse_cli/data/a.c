int __attribute__((cmse_nonsecure_entry)) answer(void) { return 42; }
