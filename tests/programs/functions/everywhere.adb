--  Calls stand in all expressions: functions call one another, and are called for bounds of loops, values of objects
--  and components, and actuals (RM 4.4, 6.4).
with Ada.Text_IO; use Ada.Text_IO;

procedure Everywhere is
   type R is record
      N : Integer;
   end record;

   V : R;

   function Is_Odd (N : Integer) return Boolean;

   function Is_Even (N : Integer) return Boolean is
   begin
      if N = 0 then
         return True;
      end if;
      return Is_Odd (N - 1);
   end Is_Even;

   function Is_Odd (N : Integer) return Boolean is
   begin
      return N /= 0 and then Is_Even (N - 1);
   end Is_Odd;

   function Square (N : Integer) return Integer is
   begin
      return N * N;
   end Square;

   procedure Show (N : Integer; B : Boolean) is
   begin
      Put (Integer'Image (N) & Boolean'Image (B));
   end Show;

   K : Integer := Square (3);
begin
   V.N := Square (Square (2));
   for I in Square (1) .. Square (2) loop
      Show (Square (I) + K, Is_Even (I));
   end loop;
   while not Is_Odd (K) loop
      K := K + 1;
   end loop;
   Show (V.N, Is_Even (7));
   New_Line;
end Everywhere;
