--  A loop around a block with a controlled record of one component, whose Finalize counts.
with Ada.Finalization; use Ada.Finalization;
with Ada.Text_IO; use Ada.Text_IO;
procedure Counted_Record is
   Count : Integer := 0;
   type Guard is new Controlled with record
      Number : Integer;
   end record;
   overriding procedure Finalize (X : in out Guard);
   overriding procedure Finalize (X : in out Guard) is
   begin
      Count := Count + 1;
   end Finalize;
begin
   for I in 1 .. TURNS loop
      declare
         G : Guard;
      begin
         null;
      end;
   end loop;
   Put_Line (Integer'Image (Count));
end Counted_Record;
