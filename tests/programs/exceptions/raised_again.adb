--  `raise;` in a loop and a block of a handler, behind another handler in it: the exception that the handler itself
--  handles; and an exception that a handler raises (RM 11.3, 11.4).
with Ada.Text_IO; use Ada.Text_IO;

procedure Raised_Again is
   Lost, Odd : exception;
   Zero      : Integer := 0;

   procedure Fail is
   begin
      raise Lost;
   exception
      when Odd =>
         Put_Line ("never");
   end Fail;
begin
   begin
      Fail;
   exception
      when Lost =>
         begin
            Zero := 1 / Zero;
         exception
            when Constraint_Error =>
               Put_Line ("inner");
         end;
         for I in 1 .. 2 loop
            declare
               N : Integer := I;
            begin
               if N = 2 then
                  raise;
               end if;
               Put_Line ("turn");
            end;
         end loop;
   end;
exception
   when Odd =>
      Put_Line ("odd");
   when Lost =>
      Put_Line ("lost");
      begin
         raise Odd;
      end;
end Raised_Again;
