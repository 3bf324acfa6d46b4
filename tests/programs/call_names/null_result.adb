--  A call gives null, which is dereferenced: Constraint_Error, for a reading and for an assignment (RM 4.1).
with Ada.Text_IO; use Ada.Text_IO;

procedure Null_Result is
   type R is record
      N : Integer := 3;
   end record;

   type P is access R;

   function None (K : Integer) return P is
   begin
      return null;
   end None;
begin
   begin
      Put_Line (Integer'Image (None (1).N));
   exception
      when Constraint_Error =>
         Put_Line ("read");
   end;
   None (1).N := 1;
exception
   when Constraint_Error =>
      Put_Line ("written");
end Null_Result;
