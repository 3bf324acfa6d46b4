--  A loop around a block with one controlled object, whose Finalize counts.
with Ada.Finalization; use Ada.Finalization;
with Ada.Text_IO; use Ada.Text_IO;
procedure Controlled_Block is
   Count : Integer := 0;
   type Guard is new Controlled with null record;
   overriding procedure Finalize (X : in out Guard);
   overriding procedure Finalize (X : in out Guard) is
   begin
      Count := Count + 1;
   end Finalize;
begin
   for I in 1 .. TURNS loop
      declare
         G : Guard;
      begin
         null;
      end;
   end loop;
   Put_Line (Integer'Image (Count));
end Controlled_Block;
