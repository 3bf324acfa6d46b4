--  Put shows a text, New_Line the end of a line, and Put_Line the one and then the other (RM A.10).
with Ada.Text_IO; use Ada.Text_IO;

procedure Print is
begin
   Put_Line ("text");
end Print;
