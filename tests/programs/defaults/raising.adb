--  A default raises: the controlled parts that are complete are finalized, the object never was, and the exception
--  goes on (RM 3.8, 7.6.1).
with Ada.Finalization; use Ada.Finalization;
with Ada.Text_IO;      use Ada.Text_IO;

procedure Raising is
   Zero : Integer := 0;

   type C is new Controlled with null record;

   overriding procedure Finalize (X : in out C);

   function Fail return Integer;

   type R is record
      First : C;
      N     : Integer := Fail;
      Last  : C;
   end record;

   type Great is record
      N : Integer := Zero - 1 + Integer'First;
   end record;

   procedure Finalize (X : in out C) is
   begin
      null;
   end Finalize;

   function Fail return Integer is
   begin
      if Zero = 0 then
         raise Constraint_Error;
      end if;
      return Zero;
   end Fail;
begin
   begin
      declare
         V : R;
      begin
         Put_Line ("never");
      end;
   exception
      when Constraint_Error =>
         Put_Line ("failed");
   end;
   declare
      G : Great;
   begin
      Put_Line ("never");
   end;
exception
   when Constraint_Error =>
      Put_Line ("overflow");
end Raising;
