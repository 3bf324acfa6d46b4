--  An exception leaves a body in the middle of an expression, and the object of the body is finalized (RM 7.6.1,
--  11.4).
with Ada.Finalization; use Ada.Finalization;
with Ada.Text_IO;      use Ada.Text_IO;

procedure Raised is
   type T is new Limited_Controlled with null record;

   overriding procedure Finalize (X : in out T);

   procedure Finalize (X : in out T) is
   begin
      null;
   end Finalize;

   function F (N : Integer) return Integer is
      V : T;
   begin
      if N = 0 then
         raise Constraint_Error;
      end if;
      return N;
   end F;
begin
   begin
      Put_Line (Integer'Image (F (2) + F (0)));
   exception
      when Constraint_Error =>
         Put_Line ("caught");
   end;
end Raised;
