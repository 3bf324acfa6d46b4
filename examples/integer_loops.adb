--  Leaving a loop from two blocks in it: the objects of both are finalized, the inner block's first (RM 5.7, 7.6.1).
--     ./adactl run examples/integer_loops.adb --trace
with Ada.Finalization; use Ada.Finalization;
with Ada.Text_IO;      use Ada.Text_IO;

procedure Main is
   type Guard is new Limited_Controlled with null record;
   overriding procedure Finalize (X : in out Guard);

   procedure Finalize (X : in out Guard) is
   begin
      Put_Line ("released");
   end Finalize;

   Sum : Integer := 0;
begin
   for Turn in 1 .. 10 loop
      declare
         Outer : Guard;
      begin
         Sum := Sum + Turn * Turn;
         declare
            Inner : Guard;
         begin
            exit when Sum mod 7 = 0 and then Turn > 2;
         end;
      end;
   end loop;
   Put_Line ("the sum is" & Integer'Image (Sum));
end Main;
