--  A doubled quote stands for one, the empty string is a string, and `&` joins two literals alone (RM 2.6, 4.5.3).
with Ada.Text_IO; use Ada.Text_IO;

procedure Strings is
begin
   Put ("""");
   Put_Line ("");
   Put_Line ("a" & "b");
   Put ("");
   Put_Line ("say ""hi""" & "" & "!");
   Put_Line ("" & "");
end Strings;
