--  A loop that calls a recursive function, whose call makes 177 calls in all.
with Ada.Text_IO; use Ada.Text_IO;
procedure Fibonacci is
   Total : Integer := 0;

   function Fib (N : Integer) return Integer is
   begin
      if N < 2 then
         return N;
      end if;
      return Fib (N - 1) + Fib (N - 2);
   end Fib;
begin
   for I in 1 .. TURNS loop
      Total := (Total + Fib (10)) mod 1_000_003;
   end loop;
   Put_Line (Integer'Image (Total));
end Fibonacci;
