--  Sums under an `if`, and a loop that is left behind it; the signs of `/`, `rem` and `mod`, the image of
--  Integer'First, and at last an overflow (RM 3.5.4, 4.5.5, 5.7).
with Ada.Text_IO; use Ada.Text_IO;

procedure Sums_And_Signs is
   S : Integer := 0;
begin
   for I in 1 .. 10 loop
      if I rem 2 = 0 then
         S := S + I;
      end if;
      exit when S > 11;
   end loop;
   Put_Line ("S" & Integer'Image (S));
   Put_Line ("q" & Integer'Image (-7 / 2));
   Put_Line ("r" & Integer'Image ((-7) rem 2));
   Put_Line ("m" & Integer'Image ((-7) mod 2));
   Put_Line ("l" & Integer'Image (-2147483647 - 1));
   S := 2147483647 + 1;
end Sums_And_Signs;
