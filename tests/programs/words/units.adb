--  Two units in one with clause, and two in one use clause (RM 8.4, 10.1.2).
with Ada.Text_IO, System.Storage_Elements;
use Ada.Text_IO, System.Storage_Elements;

procedure Units is
   N : Storage_Count := 8;
begin
   Put_Line (Integer'Image (Integer (N)));
end Units;
