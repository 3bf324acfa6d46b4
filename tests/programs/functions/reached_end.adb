--  A function that reaches its end raises Program_Error behind its own master, so its own handlers do not see it
--  (RM 6.5).
with Ada.Text_IO; use Ada.Text_IO;

procedure Reached_End is
   function F (N : Integer) return Integer is
   begin
      if N > 0 then
         return N;
      end if;
   exception
      when Program_Error =>
         return 7;
   end F;
begin
   Put_Line (Integer'Image (F (1)));
   Put_Line (Integer'Image (F (0)));
exception
   when Program_Error =>
      Put_Line ("end");
end Reached_End;
