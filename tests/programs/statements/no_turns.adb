--  A loop whose lower bound is the greater one has no turn, in either direction, but its bounds are evaluated, the lower
--  one first; so has a `while` loop whose condition is false at once (RM 5.5).
with Ada.Text_IO; use Ada.Text_IO;

procedure No_Turns is
   function Bound (N : Integer) return Integer is
   begin
      Put (Integer'Image (N));
      return N;
   end Bound;
begin
   for I in Bound (3) .. Bound (2) loop
      Put ("no");
   end loop;
   for I in reverse Bound (1) .. Bound (-1) loop
      Put ("no");
   end loop;
   for I in Integer'Last .. Integer'First loop
      Put ("no");
   end loop;
   while Bound (4) = 5 loop
      Put ("no");
   end loop;
   for I in Bound (6) .. Bound (6) loop
      Put (" turn");
   end loop;
end No_Turns;
