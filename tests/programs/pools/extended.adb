--  A pool of a type that extends one with components, Initialize and Finalize: it is initialized as it is declared,
--  and finalized behind the end of the collection that is declared behind it (RM 7.6, 7.6.1).
with Ada.Finalization; use Ada.Finalization;
with Ada.Text_IO;      use Ada.Text_IO;
with Block_Pools;      use Block_Pools;

procedure Extended is
   type T is new Controlled with record
      N : Integer := 0;
   end record;

   overriding procedure Finalize (X : in out T);

   type Pool is new Block_Pool with record
      Taken : Integer := 0;
   end record;

   overriding procedure Initialize (X : in out Pool);
   overriding procedure Finalize (X : in out Pool);

   type Deep is new Pool with record
      Again : Boolean;
   end record;

   procedure Finalize (X : in out T) is
   begin
      Put_Line ("F" & Integer'Image (X.N));
   end Finalize;

   procedure Initialize (X : in out Pool) is
   begin
      X.Taken := X.Taken + 1;
      Put_Line ("open" & Integer'Image (X.Taken));
   end Initialize;

   procedure Finalize (X : in out Pool) is
   begin
      Put_Line ("close" & Integer'Image (X.Taken));
   end Finalize;

   procedure Count (X : in out Deep) is
   begin
      X.Taken := X.Taken + 1;
      X.Again := True;
   end Count;
begin
   declare
      P : Deep (16, 1);

      type Ref is access T with Storage_Pool => P;

      A : Ref;
   begin
      A := new T;
      A.N := 7;
      Count (P);
      Put_Line (Integer'Image (P.Taken) & Boolean'Image (P.Again));
      A := new T;
   exception
      when Storage_Error =>
         Put_Line ("SE");
   end;
   Put_Line ("out");
end Extended;
