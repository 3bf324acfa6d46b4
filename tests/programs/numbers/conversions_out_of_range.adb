--  A negative Integer is no Storage_Count: its conversion raises Constraint_Error, which is handled, and nothing is
--  assigned. Storage_Count ends where Integer does: a sum beyond raises it before it is converted (RM 3.5.4, 4.6).
with Ada.Text_IO;             use Ada.Text_IO;
with System.Storage_Elements; use System.Storage_Elements;

procedure Conversions_Out_Of_Range is
   I : Integer       := -1;
   N : Storage_Count := 7;
begin
   begin
      N := Storage_Count (I);
      Put_Line ("no");
   exception
      when Constraint_Error =>
         Put_Line ("negative" & Integer'Image (Integer (N)));
   end;
   N := Storage_Count (Integer'Last);
   begin
      I := Integer (N + 1);
      Put_Line ("no");
   exception
      when Constraint_Error =>
         Put_Line ("beyond" & Integer'Image (I));
   end;
   Put_Line (Integer'Image (Integer (Storage_Count (Integer (N) + I) + 1)));
   N := Storage_Count (I - 2147483647);
   Put_Line ("no");
end Conversions_Out_Of_Range;
