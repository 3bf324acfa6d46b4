--  The bounds of a loop are evaluated once, and `mod` has the sign of the right operand (RM 4.5.5, 5.5).
with Ada.Text_IO; use Ada.Text_IO;

procedure Counted is
   N : Integer := 2;
begin
   for I in reverse 1 .. N loop
      N := 5;
      Put (Integer'Image (I) & Boolean'Image (I > 1) & Integer'Image ((-7) mod N));
   end loop;
end Counted;
