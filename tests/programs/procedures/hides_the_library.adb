--  A procedure of the text hides the library's of the same name, which a use clause makes visible, whatever their parameters are (RM 8.3, 8.4;
--  in Ada the first call is ambiguous, since the library's has a parameter with a default).
with Ada.Text_IO; use Ada.Text_IO;
procedure Main is
   procedure New_Line is
   begin
      Put_Line ("own");
   end New_Line;
begin
   New_Line;
   Ada.Text_IO.New_Line;
   declare
      procedure Put_Line (Text : in Integer) is
      begin
         Ada.Text_IO.Put_Line (Integer'Image (Text));
      end Put_Line;
   begin
      Put_Line (1);
   end;
end Main;
