--  Operations of the user call those of the ancestor, as does a statement of the block: these do nothing, and no line of the trace shows
--  them (RM 7.6).
with Ada.Finalization; use Ada.Finalization;
with Ada.Text_IO;      use Ada.Text_IO;

procedure Ancestor is
   type T is new Controlled with record
      N : Integer := 1;
   end record;

   overriding procedure Initialize (X : in out T);
   overriding procedure Adjust (X : in out T);
   overriding procedure Finalize (X : in out T);

   procedure Initialize (X : in out T) is
   begin
      Initialize (Controlled (X));
      X.N := X.N + 1;
   end Initialize;

   procedure Adjust (X : in out T) is
   begin
      X.N := X.N + 10;
      Adjust (Controlled (X));
   end Adjust;

   procedure Finalize (X : in out T) is
   begin
      Put_Line ("F" & Integer'Image (X.N));
      Finalize (Controlled (X));
   end Finalize;
begin
   declare
      A : T;
      B : T := A;
   begin
      B := A;
      Finalize (Controlled (A));
      Put_Line (Integer'Image (A.N) & Integer'Image (B.N));
   end;
end Ancestor;
