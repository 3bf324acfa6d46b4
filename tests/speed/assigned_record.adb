--  A loop around an assignment of a controlled record of one component, whose Adjust and Finalize count.
with Ada.Finalization; use Ada.Finalization;
with Ada.Text_IO; use Ada.Text_IO;
procedure Assigned_Record is
   Adjusted, Finalized : Integer := 0;
   type Handle is new Controlled with record
      Number : Integer := 0;
   end record;
   overriding procedure Adjust (X : in out Handle);
   overriding procedure Finalize (X : in out Handle);
   overriding procedure Adjust (X : in out Handle) is
   begin
      Adjusted := Adjusted + 1;
   end Adjust;
   overriding procedure Finalize (X : in out Handle) is
   begin
      Finalized := Finalized + 1;
   end Finalize;
   Source, Target : Handle;
begin
   Source.Number := 7;
   for I in 1 .. TURNS loop
      Target := Source;
   end loop;
   Put_Line (Integer'Image (Adjusted) & Integer'Image (Finalized) & Integer'Image (Target.Number));
end Assigned_Record;
