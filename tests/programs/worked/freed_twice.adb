--  An object is freed by two variables: the program is erroneous at the second time (RM 13.11.2).
with Ada.Finalization; use Ada.Finalization;
with Ada.Text_IO;      use Ada.Text_IO;
with Ada.Unchecked_Deallocation;

procedure Freed_Twice is
   type T is new Controlled with record
      N : Integer := 0;
   end record;

   overriding procedure Adjust (X : in out T);
   overriding procedure Finalize (X : in out T);

   procedure Adjust (X : in out T) is
   begin
      Put_Line ("A" & Integer'Image (X.N));
   end Adjust;

   procedure Finalize (X : in out T) is
   begin
      Put_Line ("F" & Integer'Image (X.N));
   end Finalize;
begin
   declare
      type Ref is access T;

      procedure Free is new Ada.Unchecked_Deallocation (T, Ref);

      A, B : Ref;
   begin
      begin
         A.N := 1;
      exception
         when Constraint_Error =>
            Put_Line ("CE");
      end;
      A := new T;
      B := A;
      Free (A);
      Free (A);
      Free (B);
   end;
end Freed_Twice;
