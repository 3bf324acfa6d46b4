--  Copies go back in an operation that the rules call and in a handler; an `out` formal is the actual of another one
--  (RM 6.4.1, 7.6.1, 11.4).
with Ada.Finalization; use Ada.Finalization;
with Ada.Text_IO;      use Ada.Text_IO;

procedure From_Operations is
   Count : Integer := 0;
   Odd   : Boolean := False;

   type T is new Limited_Controlled with null record;

   overriding procedure Finalize (X : in out T);

   procedure Turn (B : in out Boolean; N : out Integer) is
   begin
      B := not B;
      N := 3;
   end Turn;

   procedure Once (N : out Integer) is
   begin
      Turn (Odd, N);
   end Once;

   procedure Finalize (X : in out T) is
   begin
      Once (Count);
      Put_Line (Boolean'Image (Odd) & Integer'Image (Count));
   end Finalize;
begin
   declare
      V : T;
   begin
      raise Constraint_Error;
   end;
exception
   when Constraint_Error =>
      Turn (Odd, Count);
      Put_Line (Boolean'Image (Odd));
end From_Operations;
