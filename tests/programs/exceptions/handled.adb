--  The first handler with a choice for the exception, or with `others`, before the objects of its own construct are
--  finalized; one that no handler is for goes on (RM 7.6.1, 11.2, 11.4).
with Ada.Finalization; use Ada.Finalization;
with Ada.Text_IO;      use Ada.Text_IO;

procedure Handled is
   type A is new Controlled with record
      N : Integer := 0;
   end record;

   overriding procedure Finalize (X : in out A);

   Lost, Odd : exception;

   procedure Finalize (X : in out A) is
   begin
      Put_Line ("f" & Integer'Image (X.N));
   end Finalize;
begin
   begin
      declare
         V : A;
      begin
         V.N := 1;
         raise Lost;
      end;
      Put_Line ("no");
   exception
      when Odd =>
         Put_Line ("odd");
      when Constraint_Error | Lost =>
         Put_Line ("lost");
      when others =>
         Put_Line ("other");
   end;
   declare
      V : A;
   begin
      V.N := 1 / V.N;
   exception
      when Odd =>
         Put_Line ("odd");
      when others =>
         V.N := 2;
         Put_Line ("other");
   end;
   declare
      V : A;
   begin
      V.N := 3;
      raise Odd;
   exception
      when Lost =>
         Put_Line ("lost");
   end;
   Put_Line ("no");
exception
   when Odd =>
      Put_Line ("main");
end Handled;
