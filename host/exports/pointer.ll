; The exports of an archive of host/cross: each argument and each answer by pointer. The host's compiler and LLVM agree on pointers for every
; processor; how structures and small numbers are passed differs. The calls of `lent_c` in here are those of kit.ll. A bool is 0 or 1 in a byte.

define void @haybleater_at_power_up(ptr %head, ptr %setup, ptr %refusal) nounwind {
  %answer = call i8 @"lent_c::haybleater_power_up"(ptr %head, ptr %setup)
  store i8 %answer, ptr %refusal, align 1
  ret void
}

define void @haybleater_at_receive(ptr %head, ptr %frame, ptr %refusal) nounwind {
  %answer = call i8 @"lent_c::haybleater_receive"(ptr %head, ptr %frame)
  store i8 %answer, ptr %refusal, align 1
  ret void
}

define void @haybleater_at_tick(ptr %head) nounwind {
  call void @"lent_c::haybleater_tick"(ptr %head)
  ret void
}

define void @haybleater_at_sample(ptr %head, ptr %raw, ptr %refusal) nounwind {
  %number = load i32, ptr %raw, align 4
  %answer = call i8 @"lent_c::haybleater_sample"(ptr %head, i32 %number)
  store i8 %answer, ptr %refusal, align 1
  ret void
}

define void @haybleater_at_missing(ptr %head) nounwind {
  call void @"lent_c::haybleater_missing"(ptr %head)
  ret void
}

define void @haybleater_at_slot(ptr %head, ptr %outgoing) nounwind {
  call void @"lent_c::haybleater_slot"(ptr %outgoing, ptr %head)
  ret void
}

define void @haybleater_at_state(ptr %head, ptr %state) nounwind {
  %answer = call i8 @"lent_c::haybleater_state"(ptr %head)
  store i8 %answer, ptr %state, align 1
  ret void
}

define void @haybleater_at_good(ptr %head, ptr %good) nounwind {
  %answer = call i1 @"lent_c::haybleater_good"(ptr %head)
  %byte = zext i1 %answer to i8
  store i8 %byte, ptr %good, align 1
  ret void
}

define void @haybleater_at_position(ptr %head, ptr %located) nounwind {
  %answer = call { i8, i32 } @"lent_c::haybleater_position"(ptr %head)
  %known = extractvalue { i8, i32 } %answer, 0
  %position = extractvalue { i8, i32 } %answer, 1
  %place = getelementptr i8, ptr %located, i64 4
  store i8 %known, ptr %located, align 1
  store i32 %position, ptr %place, align 4
  ret void
}

define void @haybleater_at_waits(ptr %head, ptr %waits) nounwind {
  %answer = call i1 @"lent_c::haybleater_waits"(ptr %head)
  %byte = zext i1 %answer to i8
  store i8 %byte, ptr %waits, align 1
  ret void
}

define void @haybleater_at_goes_if_missing(ptr %head, ptr %goes) nounwind {
  %answer = call i1 @"lent_c::haybleater_goes_if_missing"(ptr %head)
  %byte = zext i1 %answer to i8
  store i8 %byte, ptr %goes, align 1
  ret void
}
