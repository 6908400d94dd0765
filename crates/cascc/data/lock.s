; The lock object: what `lock` and `unlock` do on the machine. A lock's word is 1 when it is free, and 0 or
; negative when it is taken; its address is in eax.
lock:
  lock dec [eax]
  jns enter
spin:
  cmp [eax], 0
  jle spin
  jmp lock
enter:
  ret
unlock:
  mov [eax], 1
  ret
