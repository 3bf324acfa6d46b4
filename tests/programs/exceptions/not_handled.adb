--  What handlers do not see: an exit statement, a return statement, and an exception of their own declarative part
--  (RM 11.4).
with Ada.Text_IO; use Ada.Text_IO;

procedure Not_Handled is
   Zero : Integer := 0;
begin
   loop
      begin
         exit;
      exception
         when others =>
            Put_Line ("no");
      end;
   end loop;
   begin
      declare
         N : Integer := 1 / Zero;
      begin
         Put_Line ("no");
      exception
         when others =>
            Put_Line ("no");
      end;
   exception
      when Constraint_Error =>
         Put_Line ("outside");
   end;
   begin
      Zero := Zero / Zero;
   exception
      when Constraint_Error =>
         return;
   end;
   Put_Line ("no");
exception
   when others =>
      Put_Line ("no");
end Not_Handled;
