; The eleven calls as the kit writes them: the head of each function of the crate `lent_c`, which takes structures by pointer, gets the place of
; a greater answer first and answers a pair of numbers as one, and its export, which takes and answers as C does on x86-64 Linux. host/cross
; compares the module with these lines. They show what each pointer of the calls in pointer.ll means; a kit that writes others is refused.
define internal noundef zeroext i1 @"lent_c::haybleater_good"(ptr noundef %a0) #0 {
define internal void @"lent_c::haybleater_missing"(ptr noundef %a0) #0 {
define internal noundef i8 @"lent_c::haybleater_power_up"(ptr noundef %a0, ptr noundef %a1) #0 {
define internal noundef i8 @"lent_c::haybleater_receive"(ptr noundef %a0, ptr noundef %a1) #0 {
define internal noundef i8 @"lent_c::haybleater_sample"(ptr noundef %a0, i32 noundef %a1) #0 {
define internal void @"lent_c::haybleater_slot"(ptr noundef %a0, ptr noundef %a1) #0 {
define internal void @"lent_c::haybleater_tick"(ptr noundef %a0) #0 {
define internal noundef { i8, i32 } @"lent_c::haybleater_position"(ptr noundef %a0) #0 {
define internal noundef i8 @"lent_c::haybleater_state"(ptr noundef %a0) #0 {
define internal noundef zeroext i1 @"lent_c::haybleater_waits"(ptr noundef %a0) #0 {
define internal noundef zeroext i1 @"lent_c::haybleater_goes_if_missing"(ptr noundef %a0) #0 {
define noundef zeroext i1 @haybleater_good(ptr noundef %a0) #0 {
start:
  %r0 = call i1 @"lent_c::haybleater_good"(ptr %a0)
  ret i1 %r0
}
define void @haybleater_missing(ptr noundef %a0) #0 {
start:
  call void @"lent_c::haybleater_missing"(ptr %a0)
  ret void
}
define noundef i8 @haybleater_power_up(ptr noundef %a0, ptr noundef byval([120 x i8]) align 4 %a1) #0 {
start:
  %r0 = call i8 @"lent_c::haybleater_power_up"(ptr %a0, ptr %a1)
  ret i8 %r0
}
define noundef i8 @haybleater_receive(ptr noundef %a0, i64 %a1, i64 %a2) #0 {
start:
  %r0 = alloca [16 x i8], align 4
  store i64 %a1, ptr %r0, align 4
  %r1 = getelementptr i8, ptr %r0, i64 8
  store i64 %a2, ptr %r1, align 4
  %r2 = call i8 @"lent_c::haybleater_receive"(ptr %a0, ptr %r0)
  ret i8 %r2
}
define noundef i8 @haybleater_sample(ptr noundef %a0, i32 noundef %a1) #0 {
start:
  %r0 = call i8 @"lent_c::haybleater_sample"(ptr %a0, i32 %a1)
  ret i8 %r0
}
define noundef ptr @haybleater_slot(ptr noundef %a0, ptr noundef %a1) #0 {
start:
  call void @"lent_c::haybleater_slot"(ptr %a0, ptr %a1)
  ret ptr %a0
}
define void @haybleater_tick(ptr noundef %a0) #0 {
start:
  call void @"lent_c::haybleater_tick"(ptr %a0)
  ret void
}
define i64 @haybleater_position(ptr noundef %a0) #0 {
start:
  %r0 = alloca [8 x i8], align 4
  %r1 = call { i8, i32 } @"lent_c::haybleater_position"(ptr %a0)
  %r2 = extractvalue { i8, i32 } %r1, 0
  %r3 = extractvalue { i8, i32 } %r1, 1
  store i8 %r2, ptr %r0, align 1
  %r4 = getelementptr i8, ptr %r0, i64 4
  store i32 %r3, ptr %r4, align 1
  %r5 = load i64, ptr %r0, align 4
  ret i64 %r5
}
define noundef i8 @haybleater_state(ptr noundef %a0) #0 {
start:
  %r0 = call i8 @"lent_c::haybleater_state"(ptr %a0)
  ret i8 %r0
}
define noundef zeroext i1 @haybleater_waits(ptr noundef %a0) #0 {
start:
  %r0 = call i1 @"lent_c::haybleater_waits"(ptr %a0)
  ret i1 %r0
}
define noundef zeroext i1 @haybleater_goes_if_missing(ptr noundef %a0) #0 {
start:
  %r0 = call i1 @"lent_c::haybleater_goes_if_missing"(ptr %a0)
  ret i1 %r0
}
