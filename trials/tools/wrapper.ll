
define dso_local noundef i8 @mossbuckle_draw(ptr noundef %f, i64 noundef %fl, i16 noundef %w, i16 noundef %h, ptr noundef %c, i64 noundef %cl, ptr noundef %l, i64 noundef %ll, ptr noundef %s, i64 noundef %sl, ptr noundef %p, ptr noundef %lc, ptr noundef %pl) #0 {
  %af = alloca { ptr, i64 }, align 8
  %ac = alloca { ptr, i64 }, align 8
  %al = alloca { ptr, i64 }, align 8
  %as = alloca { ptr, i64 }, align 8
  store ptr %f, ptr %af, align 8
  %f1 = getelementptr { ptr, i64 }, ptr %af, i32 0, i32 1
  store i64 %fl, ptr %f1, align 8
  store ptr %c, ptr %ac, align 8
  %c1 = getelementptr { ptr, i64 }, ptr %ac, i32 0, i32 1
  store i64 %cl, ptr %c1, align 8
  store ptr %l, ptr %al, align 8
  %l1 = getelementptr { ptr, i64 }, ptr %al, i32 0, i32 1
  store i64 %ll, ptr %l1, align 8
  store ptr %s, ptr %as, align 8
  %s1 = getelementptr { ptr, i64 }, ptr %as, i32 0, i32 1
  store i64 %sl, ptr %s1, align 8
  %r = call i8 @"trial::mossbuckle_draw"(ptr %af, i16 %w, i16 %h, ptr %ac, ptr %al, ptr %as, ptr %p, ptr %lc, ptr %pl)
  ret i8 %r
}
