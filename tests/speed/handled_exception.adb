--  A loop around a block whose exception is raised and handled.
with Ada.Text_IO; use Ada.Text_IO;
procedure Handled_Exception is
   Lost    : exception;
   Handled : Integer := 0;
begin
   for I in 1 .. TURNS loop
      begin
         raise Lost;
      exception
         when Lost =>
            Handled := Handled + 1;
      end;
   end loop;
   Put_Line (Integer'Image (Handled));
end Handled_Exception;
