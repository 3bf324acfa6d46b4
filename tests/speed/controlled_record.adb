--  A loop around a block with a controlled record of one component, which Initialize sets and Finalize adds up.
with Ada.Finalization; use Ada.Finalization;
with Ada.Text_IO; use Ada.Text_IO;
procedure Controlled_Record is
   Sum : Integer := 0;
   type Guard is new Controlled with record
      Number : Integer;
   end record;
   overriding procedure Initialize (X : in out Guard);
   overriding procedure Finalize (X : in out Guard);
   overriding procedure Initialize (X : in out Guard) is
   begin
      X.Number := 1;
   end Initialize;
   overriding procedure Finalize (X : in out Guard) is
   begin
      Sum := Sum + X.Number;
   end Finalize;
begin
   for I in 1 .. TURNS loop
      declare
         G : Guard;
      begin
         null;
      end;
   end loop;
   Put_Line (Integer'Image (Sum));
end Controlled_Record;
