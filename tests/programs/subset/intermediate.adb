--  Each result of an operator is held to the range of its type, also where the next operator would bring it back: the manual lets the sum of
--  Integers be right, and has the difference of Storage_Counts as a Storage_Offset (RM 4.5, 13.7.1).
with Ada.Text_IO;             use Ada.Text_IO;
with System.Storage_Elements; use System.Storage_Elements;

procedure Intermediate is
   N : Integer := Integer'Last;
   S : Storage_Count := 8;
begin
   begin
      N := N + 1 - 1;
      Put_Line ("no");
   exception
      when Constraint_Error =>
         Put_Line ("integer" & Integer'Image (N));
   end;
   begin
      S := S - 16 + 16;
      Put_Line ("no");
   exception
      when Constraint_Error =>
         Put_Line ("count" & Integer'Image (Integer (S)));
   end;
end Intermediate;
